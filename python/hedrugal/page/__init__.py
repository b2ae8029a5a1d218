"""A page for the browser that shows what bytes mean. `python3 -m hedrugal.page` serves it on this
machine alone."""
