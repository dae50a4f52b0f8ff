"""Workloads that the built program is measured by (workloads.py, worlds.py), and their runs (runs.py); views beside a desk (views.py);
all of it as a page (page.py)."""
