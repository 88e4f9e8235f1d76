# The script of a workload: awk -v load=NAME -v names=N -v calls=N -f workload.awk. A tree with N names in a directory is
# made, and then the timed calls follow. The tree, the callers and the calls are those of lfs_bench.
function file(number) { return sprintf("%s/file%03d", dir, number) }
function bytes(count) { return sprintf("%0*d", 2 * count, 0) }
function call(load, i) {
    if (load == "stat-deep") print "stat " file(i % names)
    else if (load == "read-hot") print "read " file(0) " 0 4096"
    else if (load == "write-4k") print "write " file(0) " at 0 " bytes(4096)
    else if (load == "write-small") print "write " file(0) " at " 16 * i % 4096 " " bytes(16)
    else if (load == "create-unlink") print i % 2 ? "unlink " dir "/made" : "create " dir "/made 0644"
    else if (load == "rename") print "rename " (i % 2 ? dir "/moved " file(0) : file(0) " " dir "/moved")
    else if (load == "list-large") print "list " dir
    else if (load == "deny") print "write " file(0) " at " 16 * i % 4096 " " bytes(16)
    else if (i % 8 == 0) call("stat-deep", i)
    else if (i % 8 == 1) call("read-hot", i)
    else if (i % 8 == 2) call("write-small", i)
    else if (i % 8 == 3) print "create " dir "/made 0644"
    else if (i % 8 == 4) print "rename " dir "/made " dir "/moved"
    else if (i % 8 == 5) call("list-large", i)
    else if (i % 8 == 6) { print "as 2000 2000"; call("deny", i); print "as 1000 1000" }
    else print "unlink " dir "/moved"
}
BEGIN {
    print "as 0 0\nmkdir /dir 0755\nchown /dir 1000 1000\nas 1000 1000"
    dir = "/dir"
    depth = load == "stat-deep" || load == "deny" ? 7 : 2
    for (at = 2; at < depth; at++) { dir = dir "/dir"; print "mkdir " dir " 0755" }
    for (number = 0; number < names; number++) print "create " file(number) " 0644"
    print "write " file(0) " end " bytes(4096)
    if (load == "deny") print "as 2000 2000"
    for (i = 0; i < calls; i++) call(load, i)
}
