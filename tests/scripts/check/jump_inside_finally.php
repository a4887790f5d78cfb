<?php
try { } finally { while (1) {
break; } }
