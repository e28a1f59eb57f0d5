"""What the tools of this folder share: sources, reports, what there is to look at in them, and how it is shown.

Outside of what is proved: it reads the reports of `lra`, whose words are proved, and shows them otherwise.
"""
