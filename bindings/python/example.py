"""A host in Python: a template and one that it extends, a context, a text."""
from jt import Budget, Fault, Template

page = Template("page", {
    "page": "{% extends 'base' %}{% block body %}Hello {{ name }}!{% endblock %}",
    "base": "<p>{% block body %}{% endblock %}</p>",
})
image = page.compile()
for name in ("World", "<Noor>"):
    print(image.run({"name": name}, Budget(fuel=100_000)))
try:
    image.run({"name": ["a", "list"]})
except Fault as fault:
    print(fault)
