# What packages are made in, whoever makes them: no language, time zone or umask of a user shows in a package, and each file in
# it has the time of the last commit.
umask 022
export LC_ALL=C TZ=UTC
SOURCE_DATE_EPOCH=$(git log -1 --format=%ct)
export SOURCE_DATE_EPOCH
