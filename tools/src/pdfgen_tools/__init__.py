"""What stands around pdfgen in a flow. README.md of tools/ maps the modules."""
