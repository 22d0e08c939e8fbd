# shellcheck shell=bash
# A PostgreSQL server of one's own, in a folder and on a socket alone. To be sourced; what examples/sql.sh and examples/guide.sh share.

# The folder of the server's programs: the last one that is installed, nothing where none is.
server_programs() {
  local folder found=
  for folder in /usr/lib/postgresql/*/bin; do
    [ -x "$folder/initdb" ] && found=$folder
  done
  command -v psql >/dev/null && echo "$found"
}

# Makes the server's files; in the order of letters of a language, where it can, since labels are to be ordered by their bytes all the same.
make_server() {
  "${server_user[@]}" "$server_bin/initdb" -D "$server_base/data" -U graph -E UTF8 --locale=C --auth=trust --no-sync "$@"
}

# Starts a server in a folder, whose clients find it by the environment. The server won't run as root: server_user has the words before its commands.
start_server() {
  local base=$1
  server_bin=$(server_programs)
  server_base=$base
  server_user=()
  mkdir "$base" || return 1
  if [ "$(id -u)" = 0 ]; then
    server_user=(setpriv --reuid=nobody --regid=nogroup --clear-groups env HOME="$base")
    chown nobody:nogroup "$base"
  fi
  {
    { make_server --locale-provider=icu --icu-locale=en-US || make_server; } &&
      "${server_user[@]}" "$server_bin/pg_ctl" -D "$base/data" -w -l "$base/server.log" -o "-k $base -c listen_addresses='' -c fsync=off" start
  } >"$base.log" 2>&1 || {
    tail -n 5 "$base.log" >&2
    return 1
  }
  export PGHOST=$base PGUSER=graph PGDATABASE=postgres
  unset PGPORT PGPASSWORD PGSERVICE
}

stop_server() {
  [ -z "${server_base-}" ] || "${server_user[@]}" "$server_bin/pg_ctl" -D "$server_base/data" -m immediate stop >/dev/null 2>&1
}
