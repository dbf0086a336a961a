"""A page that a browser opens by itself, with one picture."""

from html import escape


def page(title, picture):
    """The lines of the page, from the lines of an SVG."""
    head = ["<!DOCTYPE html>", '<html lang="en">', f'<head><meta charset="utf-8"><title>{escape(title)}</title></head>', "<body>"]
    return head + [f"<h1>{escape(title)}</h1>"] + picture + ["</body>", "</html>"]
