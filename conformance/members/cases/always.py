"""The rules of the checker, which are looked at in all cases."""


def body(*_: object) -> None:
    """(A rule does nothing.)"""
