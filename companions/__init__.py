"""What stands between a gate and its forge: a lander, workers and a watch, over one client.

docs/CONNECTING.md says how they are set up, and what somebody who writes his own has to keep to.
"""
