# Waits of Tcl: prints of each `NAME MILLISECONDS MICROSECONDS RESULT`. See ../main.c.

proc after_30 {} { after 30; return 0 }
proc vwait_after {} { after 30 {set ::done yes}; vwait ::done; return $::done }
proc gets_pipe {} { set pipe [open {|sh -c "sleep 0.03; echo hi"}]; gets $pipe line; return $line }
proc exec_sleep {} { exec sleep 0.03; return 0 }
proc exec_status {} { catch {exec sh -c "sleep 0.03; exit 4"} text options; return [lindex [dict get $options -errorcode] 2] }
proc fileevent_pipe {} {
    set pipe [open {|sh -c "sleep 0.03; echo hi"}]
    fileevent $pipe readable {set ::come yes}
    vwait ::come
    set line [gets $pipe]
    close $pipe
    return $line
}
proc socket_server {} {
    set server [socket -server {apply {{channel host port} {fconfigure $channel -buffering line; after 30 [list puts $channel hello]}}} -myaddr 127.0.0.1 0]
    set client [socket 127.0.0.1 [lindex [fconfigure $server -sockname] 2]]
    fileevent $client readable {set ::heard yes}
    vwait ::heard
    return [gets $client]
}

foreach name {after_30 vwait_after gets_pipe exec_sleep exec_status fileevent_pipe socket_server} {
    set begun [clock microseconds]
    set result [$name]
    puts "$name 30 [expr {[clock microseconds] - $begun}] $result"
}
