<?php
while (1) { try { } finally { while (1)
continue 2; } }
