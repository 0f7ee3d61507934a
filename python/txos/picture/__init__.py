"""Which steps of a recording are drawn, and how the program's picture of them is labelled."""
