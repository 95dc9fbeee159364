"""A language server for editors: messages of check, explanations, completion and definitions in scripts and layouts."""
