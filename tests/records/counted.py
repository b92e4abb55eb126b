"""counted.py: what convert.py and terminal.py hold to what is wanted, counted; what is not so is printed."""
passed = failed = 0


def held(what, got, wanted=True):
    global passed, failed
    if got == wanted:
        passed += 1
    else:
        failed += 1
        print(f"tests/records: {what}: {str(got)[:300]}, and not {str(wanted)[:300]}")


def ended():
    """Prints the last line. Whether anything failed."""
    print(f"{passed} passed, {failed} failed")
    return failed > 0
