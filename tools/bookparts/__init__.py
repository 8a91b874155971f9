"""The parts of tools/book: specs and code are read, calls are taken apart, pages are made of both, and written as Markdown and HTML."""
