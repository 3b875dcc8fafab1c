"""What `python3 -m twisted` runs."""

from twisted.application.twist._twist import Twist

Twist.main()
