"""Real Twisted beside `deferreds`: scripts run on it, programs recorded as scripts, implementations compared."""
