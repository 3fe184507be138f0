s/let reading = reading_record::after_answer(&inputs, edition, &outputs);/let reading = reading_record::after_answer(\&inputs, if outputs.status == 1 { reading.edition } else { 0 }, \&outputs);/
