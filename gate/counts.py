"""What a check sees: how much is as wanted, and what isn't, which is printed."""


class Count:
    def __init__(self):
        self.passed = self.failed = 0

    def see(self, name, wanted, given):
        if given == wanted:
            self.passed += 1
            return
        self.failed += 1
        print(f"{name}: FAILED\n  wanted: {wanted!s:.2000}\n  given: {given!s:.2000}", flush=True)

    def end(self):
        """Prints the last line; returns the status."""
        print(f"{self.passed} passed, {self.failed} failed")
        return 1 if self.failed else 0


def end(found):
    """Prints what each look found that isn't nothing, and the last line; returns the status."""
    faults = [it for it in found if it]
    print("".join(f"{it}\n" for it in faults), end="")
    print(f"{len(found) - len(faults)} passed, {len(faults)} failed")
    return 1 if faults else 0
