"""The pages of docs/ that tools/book makes from the sources."""
