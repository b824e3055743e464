"""`jt` in Python: Jinja templates, compiled and run in a sandbox that is proved.

    Template("page", {"page": "Hello {{ name }}!"}).render({"name": "World"})

    pages = Templates.from_folder("templates")
    pages.template("page.html").render({"name": "World"})

Read _templates.py, _images.py, _runs.py, _each.py and _contexts.py; _library.py has the calls of
the library.
"""
from ._contexts import Context
from ._each import Result
from ._errors import Cancelled, ContextError, Fault, JtError, NoMemory, Refused, Spent
from ._errors import TimeoutError, Used
from ._images import Budget, Image
from ._library import LIBRARY_VERSION as library_version
from ._library import check_version
from ._runs import Report, Run
from ._templates import Needs, Options, Template, Templates

__version__ = "0.1.0"
check_version(__version__)
__all__ = [
    "Budget",
    "Cancelled",
    "Context",
    "ContextError",
    "Fault",
    "Image",
    "JtError",
    "Needs",
    "NoMemory",
    "Options",
    "Refused",
    "Report",
    "Result",
    "Run",
    "Spent",
    "Template",
    "Templates",
    "TimeoutError",
    "Used",
    "library_version",
]
