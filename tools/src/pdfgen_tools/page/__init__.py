"""A run as one HTML page: what the page is told (data.py), and how it shows it (page.html)."""
