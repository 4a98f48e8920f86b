"""How planted bugs are tried: README.md says what each module does."""
