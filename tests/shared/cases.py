"""Tells the cases of a script, as the gate reads them, and counts them."""


def there(wanted, found):
    """Why a case failed, on one line."""
    return f'{str(found)[:1500]} is there, and not {str(wanted)[:1500]}'


def differing_lines(wanted, found):
    """Why a text failed: the lines that only one of the two has, the first few of each."""
    here, there_alone = ([line for line in one.splitlines() if line not in set(other.splitlines())] for one, other in ((found, wanted), (wanted, found)))
    return f'{len(here)} lines more, {here[:5]}, and {len(there_alone)} less, {there_alone[:5]}'


def tell(cases, is_brief=False):
    """Prints a line for each case as it is done, of its name and of what is wrong with it, which is empty where it passed; a brief
    script prints those that failed alone. At the end it prints the counts. Returns the exit status of the script."""
    passed = failed = 0
    for name, why in cases:
        passed += not why
        failed += bool(why)
        if why or not is_brief:
            print(f'FAILED  {name}: {why}' if why else f'ok      {name}', flush=True)
    print(f'{passed} passed, {failed} failed')
    return int(failed > 0)


def tell_cases(cases, why=there):
    """Tells briefly the cases of which each is a name, what is wanted and what is found, where `why` gives what is wrong of these."""
    return tell(((name, '' if wanted == found else why(wanted, found)) for name, wanted, found in cases), is_brief=True)
