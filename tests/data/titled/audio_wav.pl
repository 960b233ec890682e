# Cues with labels and notes, written and read by Audio::Wav, which is a library.
#
#   audio_wav.pl write FILE BITS CHANNELS FRAMES TITLE [PLACE LABEL NOTE]..   a WAVE file with cues 1, 2, ..
#   audio_wav.pl read FILE                                                    the place, label and note of each cue
#
# An empty TITLE is not set; with one the file has an INFO list too. An empty LABEL or NOTE is not set.
use strict;
use warnings;
use Audio::Wav;

my ($task, $name, @words) = @ARGV;
if ($task eq 'write') {
    my ($bits, $channels, $frames, $title, @cues) = @words;
    my $file = Audio::Wav->new->write($name, {bits_sample => $bits, sample_rate => 8000, channels => $channels});
    # A triangle of 50 frames, of its own height in each channel; of 8 bits too it takes signed numbers.
    for my $frame (0 .. $frames - 1) {
        my $height = ($bits == 8 ? 1 : 500) * (abs($frame % 50 - 25) - 12);
        $file->write(map { $height * $_ } 1 .. $channels);
    }
    $file->set_info('name' => $title) if $title ne '';
    while (my ($place, $label, $note) = splice @cues, 0, 3) {
        $file->add_cue($place, $label, $note);
    }
    $file->finish;
} else {
    # Chunks that it does not know it remarks on.
    my $cues = Audio::Wav->new->read($name)->get_cues // {};
    for my $id (sort { $a <=> $b } keys %$cues) {
        my $cue = $cues->{$id};
        print "cue $id at $cue->{position}\n";
        print "$_ $cue->{$_}\n" for grep { exists $cue->{$_} } qw(label note);
    }
}
