"""Runs lldpa-audit, as `python3 -m lldpa_audit`."""
from .command import end

end()
