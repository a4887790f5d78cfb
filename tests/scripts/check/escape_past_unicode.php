<?php
echo "a
\u{110000}";
