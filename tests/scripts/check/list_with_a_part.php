<?php
[$b] = $a;
