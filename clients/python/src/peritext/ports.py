"""Where daemons listen, and how long one is waited for."""

# A daemon listens on this machine alone.
HOST = "127.0.0.1"
# Seconds in which somebody who listens has to have answered.
PATIENCE = 10.0
# Seconds between two looks for a daemon whose connection ended.
PAUSE = 0.05
