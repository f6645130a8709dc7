"""How sphinx-build makes the reference of the package (docs/python.md)."""
import pathlib
import sys

sys.path.insert(0, str(pathlib.Path(__file__).parents[1]))

project = "dovecounter"
extensions = ["sphinx.ext.autodoc"]
html_theme = "alabaster"
html_show_copyright = False
html_copy_source = False
autodoc_member_order = "bysource"
autodoc_typehints = "signature"
autodoc_preserve_defaults = True
nitpicky = False
