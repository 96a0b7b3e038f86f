"""The checks of tools/check-docs: what documents name, the picture of the floors, and labels of papers."""
