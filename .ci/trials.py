"""The crates that have only tests."""
from functions import crate_names


def trials():
    """Their names. Each tests what stands below it."""
    return [it for it in crate_names() if it.endswith("trials")]
