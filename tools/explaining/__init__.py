"""What tools/explain is made of: what it says of a call of the program that refused or failed."""
