# All of files.sh but its reboot again and again, for as many seconds as the kernel words say.
seconds=$(tr ' ' '\n' < /proc/cmdline | sed -n 's/^seconds=//p')
rounds=0
while [ "$(cut -d . -f 1 /proc/uptime)" -lt "$seconds" ]; do
    STAYS=1 sh /parts/files.sh > /tmp/said 2>&1 || {
        cat /tmp/said
        exit 1
    }
    rounds=$((rounds + 1))
    echo "round $rounds"
done
