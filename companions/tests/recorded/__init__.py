"""What others have recorded of real forges, in the sources of Debian's packages: fetched, read, and played to the
adapter. Nothing of it is kept in this repository."""
