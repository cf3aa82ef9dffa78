"""The type hints of the Python package, whose names and parameters are those of the wrapper."""
import ast

from sources import read

# The modules of the Python package.
MODULES = ("__init__", "crypto")



def parameters(function):
    """Returns the names of a function's parameters, in order. A star precedes those that are passed by name alone."""
    own, named = ([arg.arg for arg in args] for args in (function.args.args, function.args.kwonlyargs))
    return own + ["*", *named] if named else own


def public(text):
    """Returns the public names of a Python module: for functions with the names of their parameters, for others with None.

    The methods of a public class are among them, and how it is made and called."""
    found = {}
    for it in ast.parse(text).body:
        if isinstance(it, ast.FunctionDef):
            found[it.name] = parameters(it)
        elif isinstance(it, ast.ClassDef):
            methods = [one for one in it.body if isinstance(one, ast.FunctionDef) and not it.name.startswith("_")]
            of_class = {one.name: parameters(one) for one in methods if one.name in ("__init__", "__call__") or one.name[0] != "_"}
            found |= {it.name: None, **{f"{it.name}.{name}": given for name, given in of_class.items()}}
        elif isinstance(it, (ast.Assign, ast.AnnAssign)):
            targets = it.targets if isinstance(it, ast.Assign) else [it.target]
            found |= {name.id: None for target in targets for name in ast.walk(target) if isinstance(name, ast.Name)}
    return {name: given for name, given in found.items() if not name.startswith("_")}


def hints(module):
    """Returns the public names of a module's type hints, as `public` does."""
    return public(read(f"c/packaging/python/coset/{module}.pyi"))


def unlike():
    """Returns the names for which the type hints differ from the wrapper."""
    wrong = set()
    for module in MODULES:
        hinted, there = hints(module), public(read(f"c/wrappers/python/coset/{module}.py"))
        same = {name for name in hinted if name in there and hinted[name] == there[name]}
        wrong |= {f"{module}.{name}" for name in {*hinted, *there} - same}
    return sorted(wrong)


