# For /etc/ccr.conf: tasks that are run by `step` run as the user ccr-build, who can't reach the database.
export CCR_STEP_USER=ccr-build
umask 0007
