"""Certificates: written, and checked."""
