"""The documents as one Sphinx project: dev/docs builds them into out/docs."""
import pathlib
import sys

HERE = pathlib.Path(__file__).parent
sys.path.insert(0, str(HERE.parent / "python" / "src"))

project = "Ginavoru"
author = "the Ginavoru authors"
copyright = "2026, the Ginavoru authors"
release = (HERE.parent / "VERSION").read_text().strip()
version = release

extensions = ["myst_parser", "sphinx.ext.autodoc", "sphinx.ext.napoleon"]
source_suffix = {".md": "markdown"}
root_doc = "index"
exclude_patterns = ["man"]
nitpicky = True
# The names of types in docstrings are words for people; the links of the pages are checked.
nitpick_ignore_regex = [("py:.*", ".*")]

# The package is read without the libraries that it needs.
autodoc_mock_imports = ["jsonschema", "matplotlib", "networkx", "numpy", "pandas", "scipy"]
autodoc_typehints = "none"
autodoc_member_order = "bysource"
napoleon_google_docstring = False

# A heading of up to three levels can be linked to as PAGE.md#its-words.
myst_heading_anchors = 3
myst_enable_extensions = ["colon_fence", "deflist"]

html_theme = "alabaster"
html_title = f"Ginavoru {release}"
html_theme_options = {
    "description": "A verified TORA router, and a simulator of networks of such routers",
    "fixed_sidebar": True,
    "page_width": "1100px",
    "sidebar_width": "260px",
}
html_sidebars = {"**": ["about.html", "navigation.html", "searchbox.html"]}
html_copy_source = False
html_show_sourcelink = False
