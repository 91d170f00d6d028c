# Times the same expansion by File::DesktopEntry, with the entry read before and with reading it. Argument: the entry's file.
use strict;
use warnings;
use File::DesktopEntry;
use Time::HiRes qw(time);

my @files = ('/home/a b.odt', '/home/c.odt');

sub median {
    my ($calls, $call) = @_;
    my @times;
    for (1 .. 51) {
        my $start = time;
        $call->() for 1 .. $calls;
        push @times, (time - $start) / $calls;
    }
    return (sort { $a <=> $b } @times)[25] * 1e6;
}

my $entry = File::DesktopEntry->new($ARGV[0]);
my @arguments = $entry->parse_Exec(@files);
die "File::DesktopEntry gives other arguments\n" if @arguments != 9;
printf "File::DesktopEntry, reading included: %.1f us\n", median(50, sub { File::DesktopEntry->new($ARGV[0])->parse_Exec(@files) });
printf "File::DesktopEntry, without: %.1f us\n", median(200, sub { $entry->parse_Exec(@files) });
