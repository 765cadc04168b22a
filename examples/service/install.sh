systemd-sysusers
systemd-tmpfiles --create
install -m 644 policy.toml driver.names /etc/aeron_policyd
systemctl daemon-reload
systemctl enable --now aeron_policyd
