"""Prints the metadata and the public names of the installed package."""
from importlib import metadata

import coset

about = metadata.metadata("coset-rattle")
print(about["Version"], f"0x{coset.version_number():08x}")
print(about["Summary"].partition(";")[0])
print(about["License"], about["Requires-Python"])
print(*sorted(coset.__all__))
