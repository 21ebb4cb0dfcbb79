#!/usr/bin/perl
# Mends the base PREFIX.JHR and PREFIX.JDX, a copy on the shelf, where JamNNTPd 1.3 posted to it on a 64-bit machine: the
# SubfieldLen of its headers is 8 too large for each subfield, so that `adopt` refuses them as `subfields`. A header is
# put right where its subfields end so much earlier, before another header or the end of the file; else it stays.
# usage: perl bench/subfields.pl PREFIX
use strict;
use warnings;

my ($prefix) = @ARGV or die "usage: $0 PREFIX\n";
open my $index, '<:raw', "$prefix.JDX" or die "$prefix.JDX: $!\n";
open my $headers, '+<:raw', "$prefix.JHR" or die "$prefix.JHR: $!\n";
local $/;
my ($records, $bytes) = (scalar <$index>, scalar <$headers>);
my $mended = 0;
for my $at (unpack '(x4V)*', $records) {
    next if $at + 76 > length $bytes;
    my $wanted = unpack 'V', substr $bytes, $at + 8, 4;
    my ($count, $length) = (0, 0);
    while ($length + 8 * $count < $wanted && $at + 84 + $length <= length $bytes) {
        $length += 8 + unpack 'V', substr $bytes, $at + 80 + $length, 4;
        $count++;
    }
    next if !$count || $length + 8 * $count != $wanted || $at + 76 + $length > length $bytes;
    my $next = substr $bytes, $at + 76 + $length, 4;
    next if $next ne '' && $next ne "JAM\0";
    seek $headers, $at + 8, 0;
    print $headers pack 'V', $length;
    $mended++;
}
close $headers or die "$prefix.JHR: $!\n";
print "mended $mended\n";
