"""Reads what is seen at the ports of hosts, in many forms."""
