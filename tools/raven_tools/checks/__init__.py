"""What the tools that compare something do. Each module has a `main`, which returns the status; its tool says how it is called."""
