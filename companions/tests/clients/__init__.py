"""Programs that ask a stand-in forge by the clients that people use. Debian has these clients for its own Python,
/usr/bin/python3, which may be another one than runs the companions: so each program is a process of its own, knows
nothing of the companions, gets as its word what to do, in JSON, and prints what it saw, in JSON."""
