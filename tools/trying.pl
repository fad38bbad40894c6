# What the tests in Perl have in common (tools/test_record, test_roots, test_refusals and others): files of their own,
# programs run on an input, and what came out held to what is right.
use strict;
use warnings;
use Cwd ();
use File::Basename ();
use File::Temp ();

our $here = File::Basename::dirname(Cwd::realpath(__FILE__));
our $root = File::Basename::dirname($here);
our $folder = Cwd::realpath(File::Temp::tempdir(CLEANUP => 1));
my ($passed, $failed) = (0, 0);

sub put {
    my ($file, $text) = @_;
    open my $out, '>:raw', "$folder/$file" or die "$file: $!\n";
    print $out $text;
    close $out or die "$file: $!\n";
    return "$folder/$file";
}

sub get {
    my ($file) = @_;
    open my $in, '<:raw', $file =~ m{^/} ? $file : "$folder/$file" or die "$file: $!\n";
    local $/;
    return <$in> // '';
}

# The names in a folder, but for those that begin with a point.
sub names {
    my ($at) = @_;
    opendir my $entries, $at or die "$at: $!\n";
    return sort grep { !/^\./ } readdir $entries;
}

# Exit status, standard output and standard error of a program on an input.
sub ran {
    my ($text, @words) = @_;
    put('in', $text);
    my $child = fork // die "fork: $!\n";
    if ($child == 0) {
        open STDIN, '<', "$folder/in" or die;
        open STDOUT, '>', "$folder/out" or die;
        open STDERR, '>', "$folder/err" or die;
        exec { $words[0] } @words or die;
    }
    waitpid $child, 0;
    return ($? >> 8, get('out'), get('err'));
}

sub check {
    my ($name, $held, $right) = @_;
    if ($held eq $right) {
        $passed++;
        return;
    }
    $failed++;
    $_ = s/([^\x20-\x7e\n])/sprintf '\\x%02x', ord $1/ger for $held, $right;
    print "FAILED $name\n  holds $held\n  right $right\n";
}

# Broken off, it removes what it wrote.
$SIG{$_} = sub { exit 1 } for 'HUP', 'INT', 'PIPE', 'TERM';

# The last line, and the exit status.
sub ended {
    print "$passed passed, $failed failed\n";
    exit($failed > 0);
}

1;
