"""A policy author's desk: what is wrong with a document, what is decided by it, and why."""
