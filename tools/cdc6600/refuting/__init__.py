"""Runs wrong bodies without proof, to find a case that tells them from the right ones."""
