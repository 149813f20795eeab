"""The page of a server: the list of workflows, their histories and the task queues. edge/page.py serves it beside the edge."""
