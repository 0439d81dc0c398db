"""What the scripts in tools/ share: Python 3.8 or later, and its standard library alone; what draws pictures needs
matplotlib too. Nothing of it is proved."""
