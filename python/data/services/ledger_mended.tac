"""A ledger under twistd: transfers between accounts, one lock an account."""

import os
import sys

sys.path.insert(0, os.path.dirname(os.path.abspath(__file__)))
from twisted.application import service

from ledger_mended import LedgerService

application = service.Application("ledger")
LedgerService().setServiceParent(application)
