"""What a run of `tools/c` finds wrong."""


class Wrong(list):
    """A text for each check that failed."""

    def check(self, condition, text):
        if not condition:
            self.append(text)
