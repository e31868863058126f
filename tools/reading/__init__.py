"""What the tools read: tables of wells, their settings, job streams and printouts, and whether these belong together."""
import repository  # noqa: F401  (puts the package on the path)
