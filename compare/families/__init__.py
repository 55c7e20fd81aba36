"""The families of calls that scripts are made of."""
