# Waits of Perl: prints of each `NAME MILLISECONDS MICROSECONDS RESULT`. See ../main.c.
use strict;
use warnings;
use Fcntl qw(:flock);
use IO::Select;
use IO::Socket::UNIX;
use POSIX qw(:sys_wait_h pause sigsuspend);
use Socket;
use Time::HiRes qw(sleep usleep alarm clock_gettime ualarm CLOCK_MONOTONIC);

sub in_child {
    my ($call) = @_;
    my $pid = fork;
    if (!$pid) { $call->(); POSIX::_exit(0); }
    return $pid;
}

sub pipe_written_soon {
    pipe(my $reader, my $writer) or die;
    in_child(sub { sleep 0.03; syswrite $writer, "line\n"; });
    close $writer;
    return $reader;
}

my @cases = (
    ['sleep', 30, sub { sleep 0.03; 0 }],
    ['usleep', 30, sub { usleep 30000; 0 }],
    ['select', 30, sub { 0 + select undef, undef, undef, 0.03 }],
    ['sysread', 30, sub { my $r = pipe_written_soon(); sysread $r, my $data, 10 }],
    ['readline', 30, sub { my $r = pipe_written_soon(); my $line = <$r>; chomp $line; $line }],
    ['sysread_alarm', 30, sub {
        pipe(my $reader, my $writer);
        my $rung = 0;
        eval { local $SIG{ALRM} = sub { die "rung\n" }; ualarm 30000; sysread $reader, my $data, 1; };
        $@ =~ s/\n//r }],
    ['alarm_pause', 30, sub { local $SIG{ALRM} = sub { }; ualarm 30000; pause(); 'rung' }],
    ['waitpid', 30, sub { my $pid = in_child(sub { sleep 0.03; POSIX::_exit(5) }); waitpid $pid, 0; $? >> 8 }],
    ['system', 30, sub { system('sleep 0.03; exit 6') >> 8 }],
    ['backticks', 30, sub { my $text = `sleep 0.03; echo hi`; chomp $text; $text }],
    ['open_pipe', 30, sub { open my $file, '-|', 'sleep 0.03; echo hi' or die; my $text = <$file>; chomp $text; $text }],
    ['io_select', 30, sub { my $r = pipe_written_soon(); scalar IO::Select->new($r)->can_read(4) }],
    ['socket_pair', 30, sub {
        socketpair(my $one, my $other, AF_UNIX, SOCK_STREAM, PF_UNSPEC) or die;
        in_child(sub { sleep 0.03; syswrite $other, 'xyz' });
        sysread $one, my $data, 10 }],
    ['flock', 30, sub {
        my $path = "/tmp/waits.$$";
        open my $one, '>', $path; open my $again, '>', $path; unlink $path;
        flock $one, LOCK_EX;
        my $pid = in_child(sub { sleep 0.03 });
        close $one;
        flock($again, LOCK_EX) }],
    ['kill', 30, sub {
        my $pid = in_child(sub { local $SIG{TERM} = sub { POSIX::_exit(3) }; sleep 4 });
        sleep 0.03; kill 'TERM', $pid; waitpid $pid, 0; $? >> 8 }],
);

my @readers;
for my $case (@cases) {
    my ($name, $milliseconds, $call) = @$case;
    pipe(my $reader, my $writer) or die;
    if (!fork) {
        my $begun = clock_gettime(CLOCK_MONOTONIC);
        my $result = $call->();
        my $micro = int((clock_gettime(CLOCK_MONOTONIC) - $begun) * 1e6 + 0.5);
        syswrite $writer, "$name $milliseconds $micro $result\n";
        POSIX::_exit(0);
    }
    close $writer;
    push @readers, $reader;
}
print readline $_ for @readers;
